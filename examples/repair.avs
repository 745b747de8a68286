# Bad frames, mended: one is shown as the frame before it, another as the mean of its neighbours.
source = Y4MSource("examples/clip.y4m")

# Frame n as the mean of the frames before and after it.
function Between(clip c, int n) {
    mean = Merge(c.Trim(n - 1, -1), c.Trim(n + 1, -1))
    return c.Trim(0, length=n) ++ mean ++ c.Trim(n + 1, 0)
}

source
FreezeFrame(7, 7, 6)
Between(12)
