" Vim syntax file for scripts of Neskawan, written by tools/syntax/make.
" It goes into ~/.vim/syntax, and `:set filetype=neskawan` puts it to use.
if exists("b:current_syntax")
  finish
endif

syntax case ignore
syntax iskeyword @,48-57,_
syntax keyword neskawanKeyword ALL AND ANY AS ASC AUTOMATIC BEGIN BETWEEN BY CASE CELL COMMIT COMPARE CREATE CROSS DECREMENT DELETE DESC DIMENSION DROP ELSE END EXPLAIN FOR FROM GROUP IGNORE IN INCREMENT INNER INSERT INTO IS ITERATE JOIN KEEP KEY LOAD MAIN MEASURES MODEL NAV NOT ON OR ORDER PARTITION PRESENT PRIMARY REFERENCE RETURN ROLLBACK ROWS RULES SCENARIO SELECT SEQUENTIAL SET SHOW TABLE THEN TO UNDER UNIQUE UNTIL UPDATE UPDATED UPSERT VALUES VIEW WHEN WHERE
syntax keyword neskawanKind DATE DECIMAL INT TEXT
syntax keyword neskawanCall ABS AVG CAST COUNT CV FLOOR LENGTH MAX MIN NVL PRESENTNNV PRESENTV PREVIOUS ROUND SUM
syntax keyword neskawanValue ITERATION_NUMBER NULL
syntax match neskawanNumber "\%(\<\d\+\%(\.\d\+\)\=\|\.\d\+\)"
syntax region neskawanText start="'" skip="''" end="'"
syntax match neskawanComment "--.*$"
syntax region neskawanComment start="/\*" end="\*/"

highlight default link neskawanKeyword Keyword
highlight default link neskawanKind Type
highlight default link neskawanCall Function
highlight default link neskawanValue Constant
highlight default link neskawanNumber Number
highlight default link neskawanText String
highlight default link neskawanComment Comment

let b:current_syntax = "neskawan"
