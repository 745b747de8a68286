# Each field of an interlaced clip as a frame, at twice the rate, with its rows doubled. The head still says interlaced: give x264
# --no-interlaced, or ffmpeg -vf setfield=prog. Where the field order is said wrongly in the file, movement goes back and forth: then
# write AssumeBFF.
Y4MSource("examples/clip.y4m")
AssumeTFF
fields = SeparateFields
Interleave(fields, fields).Weave
