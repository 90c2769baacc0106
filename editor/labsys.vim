" Syntax of the worlds and scripts of labsys.
"
" With this file below ~/.vim/syntax, or after `make install`: `:set syntax=labsys`. This line of a vimrc sets it for each file that
" begins with `world 2`:
"     autocmd BufRead,BufNewFile * if getline(1) ==# 'world 2' | setlocal syntax=labsys | endif
if exists('b:current_syntax')
    finish
endif

" the first word of a line of a world, and the first two of a line of a script
syntax match labsysKeyword /^ *\(world\|levels\|categories\|grades\|bound\|dir\|file\|fifo\|proc\|script\)\>/
" the first word of a line of programs
syntax match labsysKeyword /^ *\(slices\|rounds\|program\|stop\)\>/
syntax match labsysKeyword /^ *jump\s\+\(always\|fresh\|done\|denied\|refused\|number\)\>/
syntax match labsysKeyword /^ *do\>/ nextgroup=labsysCall skipwhite
syntax match labsysTag /^ *\d\+@\S\+/ nextgroup=labsysCall,labsysUtility skipwhite
syntax keyword labsysCall contained open close read write lseek dup pipe fstat mkfifo mkdir rmdir
syntax keyword labsysCall contained link unlink rename readdir stat chdir chmod chown cap_get_file
syntax keyword labsysCall contained cap_get_fd cap_set_file cap_set_fd mac_get_file mac_get_fd
syntax keyword labsysCall contained mac_set_file mac_set_fd fork exec exit wait kill getpid getppid
syntax keyword labsysCall contained getids setuid setgid umask cap_get_proc cap_set_proc
syntax keyword labsysCall contained mac_get_proc mac_set_proc aud_write aud_switch
syntax keyword labsysUtility contained getfcap setfcap getfmac setfmac

" the number of a process, other numbers, what is quoted, and names of capabilities
syntax match labsysNumberOf /\%(\S\s\+\)\@<=\d\+@\S\+/
syntax match labsysNumber /\s\@<=-\=\d\+\%(,\d\+\)*\ze\%(\s\|$\)/
syntax region labsysString start=/"/ skip=/\\./ end=/"/ oneline contains=labsysEscape,labsysCapability
syntax match labsysEscape contained /\\\(["\\]\|x\x\x\)/
syntax case ignore
syntax keyword labsysCapability cap_chown cap_dac_execute cap_dac_read_search cap_dac_write
syntax keyword labsysCapability cap_fowner cap_fsetid cap_kill cap_link_dir cap_setfcap cap_setgid
syntax keyword labsysCapability cap_setuid cap_mac_downgrade cap_mac_read cap_mac_relabel_subj
syntax keyword labsysCapability cap_mac_upgrade cap_mac_write cap_audit_control cap_audit_write
syntax case match

" what no line may have
syntax match labsysError /[\t\r]/
syntax match labsysComment /^ *#.*$/

highlight default link labsysKeyword Keyword
highlight default link labsysTag Identifier
highlight default link labsysCall Function
highlight default link labsysUtility Function
highlight default link labsysNumberOf Identifier
highlight default link labsysNumber Number
highlight default link labsysString String
highlight default link labsysEscape SpecialChar
highlight default link labsysCapability Constant
highlight default link labsysError Error
highlight default link labsysComment Comment

let b:current_syntax = 'labsys'
