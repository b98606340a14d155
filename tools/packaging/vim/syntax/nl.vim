" Networks as text: what they share with actors, and their own headings.
if exists("b:current_syntax")
  finish
endif

runtime! syntax/cal.vim
syntax keyword nlHeading network entities structure endnetwork
highlight default link nlHeading Structure

let b:current_syntax = "nl"
