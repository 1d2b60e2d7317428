" :make runs whatif-check on the script, and jumps to what it finds. Its columns count characters, so they are read as %v.
if exists("current_compiler")
  finish
endif
let current_compiler = "whatif"

CompilerSet makeprg=whatif-check\ %:S
CompilerSet errorformat=%f:%l:%v:\ %m,%-G\ \ \ \ %.%#
