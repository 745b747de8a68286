# The parts of a clip that are kept, one after the other: a line for each, with its first and its last frame.
source = Y4MSource("examples/clip.y4m")

source.Trim(0, 5) \
    ++ source.Trim(10, 13) \
    ++ source.Trim(20, 23)
