# Before an encode: keeps the frames that are wanted, cuts the black edges off, and brings the samples into the range that
# players expect.
#
#     bin/avsserve render examples/trim_crop.avs | x264 --demuxer y4m -o out.264 -

Y4MSource("examples/clip.y4m")
Trim(4, 19)                     # the frames 4 to 19
Crop(4, 2, -4, -2)              # 4 columns less at each side, and 2 rows less above and below
Limiter()
