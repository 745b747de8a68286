# The beginning of each part of a clip, one after the other, each followed by some black frames.

part = 6        # frames in a part
shown = 3       # frames that are shown of each

function Beginning(clip c, int first, int length) {
    return c.Trim(first, length=length) ++ BlankClip(c, length=2)
}

source = Y4MSource("examples/clip.y4m")
joined = source.Beginning(0, shown)
for (first = part, source.FrameCount - 1, part) {
    joined = joined ++ source.Beginning(first, shown)
}
joined
