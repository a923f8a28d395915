" Goes to each error of the file `errors`, and writes where the cursor is then into `found`: for explain_formats.py.
set nocompatible nofixeol hidden efm=%f:%l:%c:\ %trror:\ %m,%f:%l:%c:\ %tote:\ %m
cgetfile errors
let found = []
for number in range(1, len(getqflist()))
  let one = getqflist()[number - 1]
  if one.type ==# 'e' && bufname(one.bufnr) !=# 'missing.ttcn'
    execute 'cc' number
    let rest = strpart(getline('.'), col('.') - 1)
    call add(found, [bufname('%'), line('.'), matchstr(rest, '\v^(\w+(\.\d+)?|.)')])
  endif
endfor
call writefile([json_encode(found)], 'found')
qall!
