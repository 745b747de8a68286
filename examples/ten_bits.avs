# Ten bits a sample, for an encode by x264 --output-depth 10. Frames are mixed after the change of bits, so that their
# means keep two more bits than the source has.
Y4MSource("examples/clip.y4m")
ConvertBits(10)
TemporalSoften(1, 8, 8)
