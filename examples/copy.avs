Y4MSource("examples/tiny.y4m")
