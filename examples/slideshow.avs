# A slideshow: single frames of a clip, or pictures from files of one frame each, shown for a while one after the other, each coming in
# from the one before.
source = Y4MSource("examples/clip.y4m")
shown = 5      # frames for which each is shown
pictures = 4

function Shown(clip c, int n, int long) {
    return c.Trim(n, -1).Loop(long)
}

show = source.Shown(0, shown)
for (i = 1, pictures - 1) {
    before = (i - 1) * source.FrameCount / pictures
    next = i * source.FrameCount / pictures
    show = show ++ Merge(source.Shown(before, 1), source.Shown(next, 1)) ++ source.Shown(next, shown)
}
show
