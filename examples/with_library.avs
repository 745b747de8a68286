# Functions of one's own in a file of their own, which several scripts use.
Import("examples/library.avsi")

Y4MSource("examples/clip.y4m")
CutEdges(4, 2)
Denoise(strength=2)
Part(0, 9, black=2) ++ Part(12, 19)
