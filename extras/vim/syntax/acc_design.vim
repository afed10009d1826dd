" The design language of acc: made by tools/syntax from the words of crates/acc_lex/src/language.rt.
if exists("b:current_syntax")
  finish
endif

syn case match
syn keyword accDesignTables table private
syn keyword accDesignClauses always ensures repairs holds
syn keyword accDesignReads let get has count sum least greatest take mul div
syn keyword accDesignActions put del set add
syn keyword accDesignTargets goto commit undone refuse
syn keyword accDesignOthers type limit returns local point variant next undo path entry by hint forall self
syn match accDesignName /\(\<table \+\)\@<=[A-Za-z][A-Za-z0-9_]\{-}\>/
syn match accDesignName /\(\<private \+\)\@<=[A-Za-z][A-Za-z0-9_]\{-}\>/
syn match accDesignName /\(\<type \+\)\@<=[A-Za-z][A-Za-z0-9_]\{-}\>/
syn match accDesignName /\(\<point \+\)\@<=[A-Za-z][A-Za-z0-9_]\{-}\>/
syn match accDesignName /\(\<goto \+\)\@<=[A-Za-z][A-Za-z0-9_]\{-}\>/
syn match accDesignNumber /\<[0-9]\+\>/
syn match accDesignMark /\V<=\|=>\|>=\|*\|+\|,\|-\|.\|:\|=\|[\|]/
syn match accDesignEnd /;/
syn match accDesignComment /^ *#.*$/

hi def link accDesignTables Structure
hi def link accDesignClauses PreProc
hi def link accDesignReads Identifier
hi def link accDesignActions Function
hi def link accDesignTargets Statement
hi def link accDesignOthers Keyword
hi def link accDesignName Type
hi def link accDesignNumber Number
hi def link accDesignMark Operator
hi def link accDesignEnd Delimiter
hi def link accDesignComment Comment

let b:current_syntax = "acc_design"
