# A contact sheet: frames from all over a clip in one picture, as a clip of one frame.

across = 3
down = 2
source = Y4MSource("examples/clip.y4m")
Assert(source.FrameCount >= across * down, "the clip is too short for this sheet")
step = source.FrameCount / (across * down)

y = 0
while (y < down) {
    x = 0
    while (x < across) {
        picture = source.Trim((y * across + x) * step, -1)
        row = x == 0 ? picture : StackHorizontal(row, picture)
        x = x + 1
    }
    if (y == 0) { sheet = row } else { sheet = StackVertical(sheet, row) }
    y = y + 1
}
sheet
