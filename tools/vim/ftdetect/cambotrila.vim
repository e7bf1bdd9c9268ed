" Scripts, reports and event lists are known by their first line.
autocmd BufNewFile,BufRead *.script,*.report,*.events
      \ if getline(1) =~# '^beam \(script\|report\|progress\) 1$' | setfiletype cambotrila | endif
