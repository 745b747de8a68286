# A picture of any shape up to 1920x1080 in the middle of a frame of 1920x1080, for players and discs that want that size.
source = Y4MSource("examples/clip.y4m")
Assert(source.Width <= 1920 && source.Height <= 1080, "the picture is larger than 1920x1080: scale it by ffmpeg first")

left = (1920 - source.Width) / 4 * 2    # even, as columns and rows of 4:2:0 come in pairs
top = (1080 - source.Height) / 4 * 2
source.AddBorders(left, top, 1920 - source.Width - left, 1080 - source.Height - top)
