# Two encodes of one video in one picture: the left half is of the first, the right half of the second, with a line between
# them. Here the second is the first with less detail. ffmpeg makes such files: ffmpeg -i one.mkv -pix_fmt yuv420p one.y4m
one = Y4MSource("examples/clip.y4m")
two = one.GeneralConvolution(0, "1 2 1  2 4 2  1 2 1")

half = one.Width / 4 * 2
StackHorizontal(one.Crop(0, 0, half - 2, 0), BlankClip(one, width=2, color_yuv=$EB8080), two.Crop(half, 0, 0, 0))
