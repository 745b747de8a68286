" Vim syntax of the scripts that avsserve reads: keywords, filters, functions, texts, numbers and comments.
"
" Copy it to ~/.vim/syntax/avs.vim, and put into ~/.vimrc: au BufRead,BufNewFile *.avs setf avs
" tests/tools.py compares its names with docs/manual/functions.md.
if exists("b:current_syntax")
  finish
endif
syn case ignore

syn keyword avsKeyword function global return if else while for true yes false no
syn keyword avsKeyword last
syn keyword avsType clip int string bool val

syn keyword avsFilter AddBorders AlignedSplice ApplyRange AssumeBFF AssumeFPS AssumeTFF BlankClip ChangeFPS
syn keyword avsFilter ComplementParity ConditionalFilter ConditionalSelect ConvertBits ConvertToY8 Crop
syn keyword avsFilter CropBottom DeleteFrame DuplicateFrame FlipHorizontal FlipVertical FreezeFrame
syn keyword avsFilter GeneralConvolution Grayscale Greyscale Interleave Invert LetterBox Limiter Loop Merge
syn keyword avsFilter MergeChroma MergeLuma Reverse SelectEven SelectEvery SelectOdd SeparateFields
syn keyword avsFilter StackHorizontal StackVertical SwapFields SwapUV TemporalSoften Trim Turn180 TurnLeft
syn keyword avsFilter TurnRight UnalignedSplice UToY8 VToY8 Weave Y4MSource YToUV

syn keyword avsFunction Abs Assert BitAnd BitNot BitOr BitsPerComponent BitXor Chr Default Defined Eval
syn keyword avsFunction FindStr FrameCount FrameRateDenominator FrameRateNumerator Height Hex HexValue Import
syn keyword avsFunction IsBool IsClip IsInt IsString IsY8 IsYV12 IsYV16 IsYV24 IsYV411 LCase LeftStr Max
syn keyword avsFunction MidStr Min MT_MULTI_INSTANCE MT_NICE_FILTER MT_SERIALIZED Nop Ord PixelType Prefetch
syn keyword avsFunction RevStr RightStr Select SetFilterMTMode Sign String StrLen UCase Value Width

syn match avsNumber "\<\d\+\>"
syn match avsNumber "\$\x\+\>"
syn region avsText start=+"+ end=+"+
syn region avsText start=+"""+ end=+"""+
syn match avsComment "#.*$"
syn region avsComment start="/\*" end="\*/"
syn region avsComment start="\[\*" end="\*\]" contains=avsNested
syn region avsNested contained start="\[\*" end="\*\]" contains=avsNested
syn region avsComment start="^__END__$" end="\%$"

hi def link avsKeyword Keyword
hi def link avsType Type
hi def link avsFilter Function
hi def link avsFunction Identifier
hi def link avsNumber Number
hi def link avsText String
hi def link avsComment Comment
hi def link avsNested Comment
let b:current_syntax = "avs"
