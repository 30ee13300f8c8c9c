" tools/editors.py writes this file from editors/forms.txt.
autocmd BufNewFile,BufRead *.app setfiletype jac
autocmd BufNewFile,BufRead app,main
  \ if join(getline(1, 9)) =~# '^\s*\%(\[[#%].\{-}[#%]\]\s*\)*(app\>' | setfiletype jac | endif
