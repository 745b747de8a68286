# Each frame by how bright it is: dark ones become brighter, and bright ones are kept.
source = Y4MSource("examples/clip.y4m").Crop(4, 2, -4, -2)
brighter = Merge(source, BlankClip(source, color_yuv=$C88080))

# The median of the luma by 120: 0 of a dark frame, 1 and more of others.
ConditionalSelect(source, "Min(YPlaneMedian / 120, 1)", brighter, source)
