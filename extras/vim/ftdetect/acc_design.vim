" Designs of acc: made by tools/syntax from the words of crates/acc_lex/src/language.rt.
autocmd BufRead,BufNewFile *.design setfiletype acc_design
autocmd FileType acc_design setlocal commentstring=#\ %s comments=:#
