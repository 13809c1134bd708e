" :compiler paragonc, and then :make checks the source and jumps to a refusal.
if exists("current_compiler")
  finish
endif
let current_compiler = "paragonc"

" The answer does not name the file: it is put before it.
CompilerSet makeprg=paragonc\ --check\ %:S\ \\\|\ sed\ s@^@%:@
CompilerSet errorformat=%f:refused\ %n\ at\ %l:%c%m,%f:refused\ %n\ at\ %l:%c
