# Functions for other scripts, which call them after Import("examples/library.avsi").

# The clip with its edges cut off, so many columns at each side and rows above and below.
function CutEdges(clip c, int across, int down) {
    return c.Crop(across, down, -across, -down)
}

# The clip with less noise: more for larger strengths, from 1 to 3.
function Denoise(clip c, int "strength") {
    strength = Default(strength, 1)
    Assert(strength >= 1 && strength <= 3, "Denoise: the strength is 1, 2 or 3")
    return c.TemporalSoften(strength, 4 * strength, 8 * strength)
}

# The frames from one number to another, and so many black ones after them.
function Part(clip c, int first, int last, int "black") {
    return c.Trim(first, last) ++ BlankClip(c, length=Default(black, 1))
}
