# A source and what filters make of it, side by side, to look at in a player: the source is at the left.
#
#     bin/avsserve render examples/compare.avs | mpv -

source = Y4MSource("examples/clip.y4m")
filtered = source.Limiter(60, 160).SwapUV
bar = BlankClip(source, width=4, color_yuv=$EB8080)

StackHorizontal(source, bar, filtered)
