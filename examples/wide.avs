# A picture of any shape in a frame of 16:9: black bars above and below a picture that is wider, and at both sides of one
# that is narrower.

function InFrame(clip c, int across, int down) {
    if (c.Width * down > c.Height * across) {
        missing = c.Width * down / across - c.Height
        bar = missing / 4 * 2   # even, as rows of 4:2:0 come in pairs
        return c.AddBorders(0, bar, 0, bar)
    }
    missing = c.Height * across / down - c.Width
    bar = missing / 4 * 2
    return c.AddBorders(bar, 0, bar, 0)
}

Y4MSource("examples/clip.y4m")
Crop(4, 2, -4, -2)
InFrame(16, 9)
