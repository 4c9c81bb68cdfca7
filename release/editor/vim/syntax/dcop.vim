" Vim syntax of .dcop files: problem text of Sefwllon, and the reports that may stand behind it. dcop(5) tells the format.
if exists("b:current_syntax")
  finish
endif

syntax case match
setlocal iskeyword=@,48-57,_,-,.

syntax match dcopComment /#.*/
syntax match dcopHeader /^\s*dcop\s\+[12]\ze\s*\(#.*\)\?\r\?$/
syntax match dcopGoal /^\s*goal\s\+\(min\|max\)\ze\s*\(#.*\)\?\r\?$/
syntax match dcopLine /^\s*\(var\|table\|end\)\>/
syntax match dcopReport /^\s*\(status\|method\|error\|deliveries\|cost\|lower\|upper\|value\|certificate\|util\|turn\|event\)\>/
syntax match dcopNumber /\(^\|\s\)\zs\d\{1,19}\ze\(\s\|$\)/
syntax match dcopColon /\(^\|\s\)\zs:\ze\(\s\|$\)/

highlight default link dcopComment Comment
highlight default link dcopHeader PreProc
highlight default link dcopGoal Keyword
highlight default link dcopLine Statement
highlight default link dcopReport Type
highlight default link dcopNumber Number
highlight default link dcopColon Delimiter

let b:current_syntax = "dcop"
