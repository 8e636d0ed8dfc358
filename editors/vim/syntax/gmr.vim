" Colours for gmr's maps (.gmap), books (.gbook) and scripts (.gscript).
" To have them, copy the folders of editors/vim into ~/.vim.
if exists('b:current_syntax')
  finish
endif
syntax case match

syntax keyword gmrHead gmap book dim embed next darts
syntax keyword gmrSide rule left right pre
syntax keyword gmrStatement apply each undo redo group end
syntax keyword gmrWith with hook
syntax keyword gmrKind int bool vec2 vec3 rgb
syntax keyword gmrChoice if then else
syntax keyword gmrLogic and or not
syntax keyword gmrTruth true false
syntax keyword gmrCollector sum count min max same
syntax match gmrFunction /\<\%(vec2\|vec3\|rgb\|x\|y\|z\|red\|green\|blue\)\ze\s*(/
syntax match gmrNumber /\<\d\+\>/
syntax match gmrGone /\<_\>/
syntax match gmrLink /-\s*\d\+\s*-\ze\s*\a/
syntax match gmrPath /@\d\+/
syntax match gmrRuleName /\%(\<\%(rule\|apply\)\s\+\)\@<=\a\w*/
syntax match gmrComment /#.*$/ contains=gmrTodo,@Spell
syntax keyword gmrTodo contained TODO FIXME XXX

highlight default link gmrHead PreProc
highlight default link gmrSide Structure
highlight default link gmrStatement Statement
highlight default link gmrWith Keyword
highlight default link gmrKind Type
highlight default link gmrChoice Conditional
highlight default link gmrLogic Operator
highlight default link gmrTruth Boolean
highlight default link gmrCollector Function
highlight default link gmrFunction Function
highlight default link gmrNumber Number
highlight default link gmrGone Special
highlight default link gmrLink Operator
highlight default link gmrPath Special
highlight default link gmrRuleName Identifier
highlight default link gmrComment Comment
highlight default link gmrTodo Todo

let b:current_syntax = 'gmr'
