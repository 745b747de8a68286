# Where two clips differ, beside both: grey where they are the same, brighter where the first is brighter, darker where the second
# is.
one = Y4MSource("examples/clip.y4m")
two = one.TemporalSoften(1, 255, 255)

StackHorizontal(one, two, Merge(one, two.Invert).Greyscale)
