# An old tape for a ten-bit encode, x264 --output-depth 10: the noisy edges are cut off, noise is averaged with ten bits a sample,
# the picture is put back into the middle of its frame, and all is brought into the range that players expect.
Y4MSource("examples/clip.y4m")
width = last.Width
height = last.Height
Crop(4, 2, -4, -2)
ConvertBits(10)
TemporalSoften(2, 4, 8)             # thresholds are as for 8 bits
GeneralConvolution(0, "0 1 0  1 12 1  0 1 0")
AddBorders(4, 2, width - last.Width - 4, height - last.Height - 2)
Limiter
