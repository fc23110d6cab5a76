//! Texts of the test plug-ins with their results.

/// Expressions, paths and filters.
pub(crate) const EXPRESSIONS: &str =
    r#"{"template": "{{nilx| append : nilx }}{{\"s\"}}", "globals": {"x": "-1", "nilx": "s"}, "written": "sss"}
{"template": "-x y{{ \r\n blank| append : \r\n +2  }}", "globals": {"e": " ", "b": "a"}, "written": "-x y2"}
{"template": "{{\t\"é\"\t|append:\t't' | append :\"s\" }}a %}", "written": "étsa %}"}
{"template": "{{ nil-x[blank]-}}", "written": "", "error": "liquid: Expected scalar\n  with:\n    found=blank\n"}
{"template": "{ { { {{{-  nilx\t}}", "written": "", "error": "liquid: Invalid liquid (line 1, column 7)\n"}
{"template": "{{\t-1|  append  }}", "written": "", "error": "liquid: Unexpected arguments\nfrom: Filter parsing error\n  with:\n    filter=append\n"}
{"template": "}{{o | nope}}{{1 -}}", "written": "", "error": "liquid: Unknown filter (line 1, column 8)\n  with:\n    requested filter=nope\n    available filters=append, fail\n"}
{"template": "{{ o.nil.x}}%x y", "globals": {"o": "a"}, "written": "", "error": "liquid: Unknown index\n  with:\n    variable=o\n    requested index=nil\n    available indexes=\n", "lenient": {"written": "%x y"}}
{"template": "{{ l}}", "written": "", "error": "liquid: Unknown variable\n  with:\n    requested variable=l\n", "lenient": {"written": ""}}
{"template": "{{ '%}'| fail\t-}}", "globals": {"l": "size"}, "written": "", "error": "liquid: bad\nfrom: Filter error\n  with:\n    filter=fail\n    input=\"%}\"\n"}
{"template": "aa{{-e \r\n }}}}\né", "globals": {"a": "1", "e": "o"}, "written": "aao}}\né"}
{"template": "{{ 42  }}{{  nil-x }}", "globals": {"nil-x": "first"}, "written": "42first"}
{"template": "{{  blank-}}{\n{{- 1\t}}{{\" \"  -}}{{0  |append \r\n : e}}", "globals": {"e": "o"}, "written": "{1 0o"}
{"template": "{{-\tl[\nnull]-}}", "written": "", "error": "liquid: Expected scalar\n  with:\n    found=nil\n"}
{"template": "{{ o| \r\n append:\t-}}", "written": "", "error": "liquid: Invalid liquid (line 1, column 1)\n"}
{"template": " {{-a |\tfail: 1 \r\n }}", "written": "", "error": "liquid: Unexpected arguments\nfrom: Filter parsing error\n  with:\n    filter=fail: 1\n"}
{"template": "{{-\nsize |  nope}}", "globals": {"e": " "}, "written": "", "error": "liquid: Unknown filter (line 2, column 9)\n  with:\n    requested filter=nope\n    available filters=append, fail\n"}
{"template": "}{{\nb[\t\"{{\"  ]  }}", "globals": {"b": "é"}, "written": "}", "error": "liquid: Unknown index\n  with:\n    variable=b\n    requested index={{\n    available indexes=\n", "lenient": {"written": "}"}}
{"template": "{{ l\n}}", "written": "", "error": "liquid: Unknown variable\n  with:\n    requested variable=l\n", "lenient": {"written": ""}}
{"template": "{{ 1  |\tfail  |append:\tsize  }}\n", "written": "", "error": "liquid: bad\nfrom: Filter error\n  with:\n    filter=fail\n    input=1\n"}
{"template": "{{empty -}}{ {éé%{{-\"{{\"  }}", "written": "{ {éé%{{"}
{"template": "{{-\"é\" \r\n }}x y", "globals": {"y": "1", "x": "a"}, "written": "éx y"}
{"template": "%{{ true  }}x y", "globals": {"e": "o", "x": "+1"}, "written": "%truex y"}
{"template": "}{{b.true[null]}}{{  a.y[  a.nil][\ty.nilx\t]  }}%x yé", "written": "}", "error": "liquid: Expected scalar\n  with:\n    found=nil\n"}
{"template": "{{{\t\"é\"-}}", "written": "", "error": "liquid: Invalid liquid (line 1, column 1)\n"}
{"template": "{{\ta \r\n | fail \r\n | fail: 1|append:\t\"é\"}}", "written": "", "error": "liquid: Unexpected arguments\nfrom: Filter parsing error\n  with:\n    filter=fail: 1\n"}
{"template": "{{\"é\"\n| nope \r\n -}}{{ l[  nil-x \r\n ]._u\t|  append|append: a \r\n }}%", "written": "", "error": "liquid: Unknown filter (line 2, column 3)\n  with:\n    requested filter=nope\n    available filters=append, fail\n"}
{"template": "{{\nempty-}}{{  o }}}}é{{nil}}{{\t_u.y[y[ \r\n +2] ]  }}", "globals": {"o": "size", "y": "é"}, "written": "size}}é", "error": "liquid: Unknown index\n  with:\n    variable=y\n    requested index=2\n    available indexes=\n", "lenient": {"written": "size}}é", "error": "liquid: Expected scalar\n  with:\n    found=nil\n"}}
{"template": "{{- size\n}}é", "written": "", "error": "liquid: Unknown variable\n  with:\n    requested variable=size\n", "lenient": {"written": "é"}}
{"template": "{{  \"é\"|fail|  append :n-1[n-1\t]  }}{{-1}}", "written": "", "error": "liquid: bad\nfrom: Filter error\n  with:\n    filter=fail\n    input=\"é\"\n"}
{"template": "{{ \r\n 't' \r\n |append  : \r\n 1 \r\n }}", "globals": {"a": "first"}, "written": "t1"}
{"template": "{ {é{{nil }}}}", "written": "{ {é}}"}
{"template": "é{{y \r\n }}}}{{-null  }}", "globals": {"y": "+1"}, "written": "é+1}}"}
{"template": "{{  x.x[\tblank ]\t}}", "written": "", "error": "liquid: Expected scalar\n  with:\n    found=blank\n"}
{"template": "{{{ \r\n +2  }}é", "written": "", "error": "liquid: Invalid liquid (line 1, column 1)\n"}
{"template": "{{-  false -}}{{nil-x | append-}}", "written": "", "error": "liquid: Unexpected arguments\nfrom: Filter parsing error\n  with:\n    filter=append\n"}
{"template": "{{ g\t|  nope}}{{e }}", "written": "", "error": "liquid: Unknown filter (line 1, column 9)\n  with:\n    requested filter=nope\n    available filters=append, fail\n"}
{"template": "{{-\t_u['t'].e  }}", "globals": {"_u": "é"}, "written": "", "error": "liquid: Unknown index\n  with:\n    variable=_u\n    requested index=t\n    available indexes=\n", "lenient": {"written": ""}}
{"template": "{{- y}}", "written": "", "error": "liquid: Unknown variable\n  with:\n    requested variable=y\n", "lenient": {"written": ""}}
{"template": "é{{1 |  fail \r\n | append\n:a \r\n }}", "written": "é", "error": "liquid: bad\nfrom: Filter error\n  with:\n    filter=fail\n    input=1\n"}"#;

/// Blocks, dividers and escaped bodies.
pub(crate) const BLOCKS: &str =
    r#"{"template": "ax y{%- box %}{% endbox  %}", "globals": {"o": "é", "b": "+1", "a": "first"}, "written": "ax y[]"}
{"template": "{{\tfalse }}{%box%}{%\tendbox \r\n %}", "globals": {"b": "o", "e": ""}, "written": "false[]"}
{"template": "{% box  %}{% box%}b {% endbox -%}{%-\nendbox -%}é", "globals": {"b": " "}, "written": "[[b ]]é"}
{"template": "{%-swap\t%}{%-\nmid%}{{\tnilx[ \r\n g[\nnil\t]].c-}}\n{%\nendswap%}", "written": "", "error": "liquid: Expected scalar\n  with:\n    found=nil\n"}
{"template": "{% 1 %}{{\tb -}} ", "written": "", "error": "liquid: Invalid liquid (line 1, column 1)\n"}
{"template": "{% box -%}{{ \r\n b \r\n }}{%box\t-%}-{%\nendbox  -%}", "globals": {"o": "+1"}, "written": "", "error": "liquid: Unclosed block. {% endbox %} tag expected. (line 4, column 12)\n"}
{"template": "x ya%{%raw \r\n %}{% box-%}{{-\tc[a[ nil ]]-}}{%-  endbox-%}}}", "globals": {"l": "-1"}, "written": "", "error": "liquid: Unclosed block. {% endraw %} tag expected. (line 2, column 47)\n"}
{"template": "{%-\nswap \r\n %}{% \r\n box-%}{{ l }}{%-  endbox -%}%}{%mid %}-", "globals": {"b": "-1"}, "written": "", "error": "liquid: Unclosed block. {% endswap %} tag expected. (line 4, column 41)\n"}
{"template": "{% box%}{{-\tn-1\t}}aa{%  endbox\t-%}{{nilx|\nappend\n-}}", "written": "", "error": "liquid: Unexpected arguments\nfrom: Filter parsing error\n  with:\n    filter=append\n"}
{"template": "a{% box 1 %}}{%-endbox  -%}", "written": "", "error": "liquid: Unexpected token (line 1, column 9)\n"}
{"template": "{%box -%}{{o| \r\n nope}}{%- \r\n endbox\n%}", "written": "", "error": "liquid: Unknown filter (line 2, column 2)\n  with:\n    requested filter=nope\n    available filters=append, fail\n"}
{"template": "{%- \r\n box  %}\n{{ nilx[  \"é\"  ] | append :\t-1 \r\n }}{%\tendbox\n%}", "globals": {"nilx": "é", "l": "first", "a": "", "o": " "}, "written": "[\n", "error": "liquid: Unknown index\n  with:\n    variable=nilx\n    requested index=é\n    available indexes=\n", "lenient": {"written": "[\n-1]"}}
{"template": "{%-box-%}{{a }}{%  endbox%}", "written": "[", "error": "liquid: Unknown variable\n  with:\n    requested variable=a\n", "lenient": {"written": "[]"}}
{"template": "{{ 't' | fail}} ", "written": "", "error": "liquid: bad\nfrom: Filter error\n  with:\n    filter=fail\n    input=\"t\"\n"}
{"template": "{{  +2 }} {% raw-%} {%  swap \r\n %}  \n {%-mid%}{%endswap\t%}{% endraw%}}}", "written": "2 {%  swap \r\n %}  \n {%-mid%}{%endswap\t%}}}"}
{"template": "{%  raw%}{{ y| append:empty }}{%endraw  %}", "globals": {"e": ""}, "written": "{{ y| append:empty }}"}
{"template": "x y{%  raw%}{{{c\n}}{% endraw  -%}  \n ", "globals": {"x": "first"}, "written": "x y{{{c\n}}"}
{"template": "{{b[nil].nil }}", "written": "", "error": "liquid: Expected scalar\n  with:\n    found=nil\n"}
{"template": "{%-box -%}{ {{%-endbox%}x y ", "written": "", "error": "liquid: Invalid liquid (line 1, column 13)\n"}
{"template": "a{%\nbox-%}{% swap %}{{\t\"s\"}}{% box%}%}{% \r\n endbox\n-%}{{  0  | append\n:  e[ \r\n \" \" ]|append\n:  size-}}x y{%- mid \r\n %}b é{%endswap%}", "written": "", "error": "liquid: Unclosed block. {% endbox %} tag expected. (line 8, column 18)\n"}
{"template": "%{% raw -%}{%-\tendraw a | append: 1%}%}}", "written": "", "error": "liquid: Unclosed block. {% endraw %} tag expected. (line 1, column 41)\n"}
{"template": "a{{size[ g.a.nil-x]}}%}{%swap %}", "written": "", "error": "liquid: Unclosed block. {% endswap %} tag expected. (line 1, column 33)\n"}
{"template": "}} {%box%}{{ y}} {% \r\n endbox\n%}{{\n_u \r\n |\tappend\n}}{ {{{-\"é\"|\tappend :\n\"{{\"-}}", "globals": {"a": "-1", "x": "size"}, "written": "", "error": "liquid: Unexpected arguments\nfrom: Filter parsing error\n  with:\n    filter=append\n"}
{"template": "{{- nilx\t|\nappend\n:\t\"{{\"\n}}{%\tswap %}{%box  -%}{{n-1  }}{%endbox = %}{%- endswap%}}}", "written": "", "error": "liquid: Unexpected token (line 4, column 41)\n"}
{"template": "{{ \r\n \"s\"  |fail \r\n |  nope  -}}", "written": "", "error": "liquid: Unknown filter (line 3, column 5)\n  with:\n    requested filter=nope\n    available filters=append, fail\n"}
{"template": "{% \r\n raw -%}{%\nendraw\n%}{{  l.g}}{{first  | append:  +2}}", "globals": {"l": "size"}, "written": "", "error": "liquid: Unknown index\n  with:\n    variable=l\n    requested index=g\n    available indexes=\n", "lenient": {"written": "2"}}
{"template": "{{\nb\n}}{%\tbox%}b {%endbox-%}  \n \n", "written": "", "error": "liquid: Unknown variable\n  with:\n    requested variable=b\n", "lenient": {"written": "[b ]"}}
{"template": "{{\"{{\"|\nfail -}}}%", "written": "", "error": "liquid: bad\nfrom: Filter error\n  with:\n    filter=fail\n    input=\"{{\"\n"}
{"template": "a{%  raw %}%a é{% endraw %}}", "globals": {"e": "1"}, "written": "a%a é}"}
{"template": "{%-raw %}éa{{\te  }}{{-a\n}}{%endraw\t-%}{ {", "written": "éa{{\te  }}{{-a\n}}{ {"}
{"template": "{%-\tswap%}{% mid\t-%}{%- endswap%}", "written": ""}
{"template": "{{  y[\tnil ]\t}}  \n   \n ", "written": "", "error": "liquid: Expected scalar\n  with:\n    found=nil\n"}
{"template": "{{%box\t%}{%\nendbox-%}", "written": "", "error": "liquid: Invalid liquid (line 1, column 1)\n"}
{"template": "{% \r\n swap -%}{{\ny}}{%- box\n%} ", "written": "", "error": "liquid: Unclosed block. {% endbox %} tag expected. (line 4, column 4)\n"}
{"template": "%{{\n-1 | append:\tempty}}{%raw \r\n -%}{ {{%- endraw = %}", "written": "", "error": "liquid: Unclosed block. {% endraw %} tag expected. (line 3, column 23)\n"}
{"template": "{%swap\n%}", "written": "", "error": "liquid: Unclosed block. {% endswap %} tag expected. (line 2, column 3)\n"}
{"template": "{{l }}{{- l\n|\tfail |\nappend\t: o  ,size\n-}}{%box \r\n %}%}%}", "written": "", "error": "liquid: Unexpected arguments\nfrom: Filter parsing error\n  with:\n    filter=append\t: o  ,size\n"}
{"template": "{%-  swap \r\n %}{%mid%}{%\tbox\n%}{{ c[nilx.l\n]\t}}{{null | append:  l}}{{null\n-}}é{%endbox %}{%box %}ax y{%- endbox \r\n %}{% endswap \"x\"\t%}{{\tnull-}}", "written": "", "error": "liquid: Unexpected token (line 6, column 15)\n"}
{"template": "{{nil-x \r\n | nope | append  : \r\n e  : e[\t+2\n] |append :_u  }}%{%box -%}\n{% \r\n endbox  %}{{\"s\"  -}}", "written": "", "error": "liquid: Unknown filter (line 2, column 4)\n  with:\n    requested filter=nope\n    available filters=append, fail\n"}
{"template": "{{ first.b}}", "globals": {"first": "1"}, "written": "", "error": "liquid: Unknown index\n  with:\n    variable=first\n    requested index=b\n    available indexes=\n", "lenient": {"written": ""}}"#;

/// Tags and blocks that change names and frames.
pub(crate) const FRAMES: &str = r#"{"template": "{% box-%}{%-endbox%}{%- brk %}", "written": "[]"}
{"template": "{%- brk\t%} }{%set\nc  empty%}{% box%}{% endbox %}{{\ntrue\n}}", "globals": {"b": "s"}, "written": ""}
{"template": "{%\nbrk \r\n %}{%\tbox %}{% \r\n endbox%}{{-\n\"é\"-}}", "written": ""}
{"template": "{%box -%}{{ \r\n b[ null\t] \r\n -}}x y{% swap%}{%-set x n-1  %}{%-\nmid%}-{%endswap %}{%\tbrk -%}{%endbox\t%}", "globals": {"n-1": "1", "y": " ", "a": "", "x": "a"}, "written": "[", "error": "liquid: Expected scalar\n  with:\n    found=nil\n"}
{"template": "{ {{%  swap %}{%\tmid  %}{%  swap  %} {{a\n}}{ {{%\tbox\t%}{% box%}{%\tset g  b %}{{}}{% 1 %}%}{%endbox%}{{y}}{{e[size]\t| append \r\n :n-1}}{% \r\n raw\t%}{{\tl\n}}{%-endraw\t%}{%endbox %}{% mid  -%}-{%-endswap%}{%set nilx e-%}{%-endswap %}", "globals": {"e": "+1"}, "written": "", "error": "liquid: Invalid liquid (line 1, column 3)\n"}
{"template": "{%set  first\n0\n-%}{{ b\t|\nappend : g[null\n],\nb}}{% box  -%}{%-endbox\n%}{{\no -}}{{nilx  |  append: \r\n y }}{%brk \r\n %}", "globals": {"a": "size"}, "written": "", "error": "liquid: Unexpected arguments\nfrom: Filter parsing error\n  with:\n    filter=append : g[null\n],\nb\n"}
{"template": "{{-l}}{%with\nb nil-x\t-%}{%-swap%}{% mid %}{{ o }}{%- \r\n set size a \r\n %}{%\nset 1 a\n%}{{ \r\n nil-x[  42\n]| \r\n append : \"é\" \r\n -}}{%endswap%}{%endwith  %}", "globals": {"o": "a", "e": "-1"}, "written": "", "error": "liquid: Unexpected token (line 5, column 5)\n"}
{"template": "a{{ nil\n|append:first \r\n |\tnope\n}}%", "globals": {"l": "1"}, "written": "", "error": "liquid: Unknown filter (line 3, column 4)\n  with:\n    requested filter=nope\n    available filters=append, fail\n"}
{"template": "{{\ta| append  :\"{{\"  -}}{{c[b  ] }}{%-  box -%}{%-  endbox %}", "globals": {"a": "é", "e": "s", "b": "", "c": "1"}, "written": "é{{", "error": "liquid: Unknown index\n  with:\n    variable=c\n    requested index=\n    available indexes=\n", "lenient": {"written": "é{{[]"}}
{"template": "{% box\t%}b {%endbox%}{{- x \r\n }}{{\tsize}}", "written": "[b ]", "error": "liquid: Unknown variable\n  with:\n    requested variable=x\n", "lenient": {"written": "[b ]"}}
{"template": "x y {%  set y false%}{%\tbox %}{%- endbox %}", "globals": {"b": "é"}, "written": "x y []"}
{"template": "%{% box -%}{%\nendbox\t%}{% box-%}{{ \r\n \"\" \r\n }}{%\nendbox\t-%}  \n ", "written": "%[][]"}
{"template": "{%box-%}é{%endbox %}", "globals": {"b": "size"}, "written": "[é]"}
{"template": "{%\nbox\t-%}{{-\nblank|\nappend :\tsize[  empty ]\n}}{{-\t\"s\"\n}}{% \r\n endbox -%}", "globals": {"a": "é", "size": "o"}, "written": "[", "error": "liquid: Expected scalar\n  with:\n    found=empty\nfrom: Filter error\n  with:\n    filter=append\n    input=blank\n"}
{"template": "{%\nglob \r\n %}{% \r\n endglob%}{%sbox  %}{ {{%\tendsbox %}}{%-\tbox \r\n -%}b {%brk %}{% endbox\t%}", "globals": {"b": "-1", "e": "size"}, "written": "", "error": "liquid: Invalid liquid (line 4, column 23)\n"}
{"template": "{{true}}{%-  box %}{{  c|  append\n:\tb, c.first \r\n }}{%  endbox-%}", "globals": {"c": "o"}, "written": "", "error": "liquid: Unexpected arguments\nfrom: Filter parsing error\n  with:\n    filter=append\n:\tb, c.first\n"}
{"template": "{%set first nilx \r\n %}{%set n-1 n-1.y%}{%-box  %}\n{ {b {{- \r\n x.a.l  }}{% \r\n endbox\t%}", "globals": {"l": "first", "x": "1", "n-1": "s", "nilx": "-1", "b": "1", "o": "-1"}, "written": "", "error": "liquid: Unknown index\n  with:\n    variable=n-1\n    requested index=y\n    available indexes=\n", "lenient": {"written": "[\n{ {b]"}}
{"template": "{{\n0-}}{%-box\n%}{%\tset\nnil-x g%}{%endbox%}{{o[ \r\n \"é\"]\n}}{%set nilx 42 \r\n %}", "written": "0[", "error": "liquid: Unknown variable\n  with:\n    requested variable=g\n", "lenient": {"written": "0[]"}}
{"template": "é {%- box %}{%  set a \" \" \r\n -%}{%-\tendbox\n%}", "globals": {"b": "a"}, "written": "é[]"}
{"template": "{%glob%}{% raw \r\n -%}{%endraw\n%}{%endglob \r\n %}{%brk -%}\n", "globals": {"l": "+1", "o": " "}, "written": ""}
{"template": "{{\t-1 }}{%\nbrk%}-{% \r\n raw %}%{% sbox%}b {%\nendsbox\t%}{%\tendraw%}", "written": "-1"}
{"template": "{{\ttrue  -}}{{e[\tempty].true-}}{%\tset g b %}a", "globals": {"g": "a"}, "written": "true", "error": "liquid: Expected scalar\n  with:\n    found=empty\n"}
{"template": "{%-brk-%}{%- box  %}{{  first }}{%  endbox %}é{%\tbrk \r\n %}{%-sbox%}{{-\tb \r\n |  append  :nil}}{%set _u\n1 \r\n %}{ {{%endsbox%}}}", "globals": {"x": "é"}, "written": "", "error": "liquid: Invalid liquid (line 5, column 6)\n"}
{"template": "{{-size}}{%\tbox-%}{{first}}é{%sbox \r\n %} {{- \r\n _u  }}{%\nendsbox%}{{ first \r\n | append  :  y ,false }}{%endbox%}", "globals": {"b": "s", "x": "+1", "e": " "}, "written": "", "error": "liquid: Unexpected arguments\nfrom: Filter parsing error\n  with:\n    filter=append  :  y ,false\n"}
{"template": "{{c[\"é\"  ]\n}}%{%  box \r\n %}{% box-%}{{\ty-}}{%endbox \r\n -%}{%- set _u \"é\" -%}{% set  first\ntrue%}{% \r\n endbox \r\n -%}", "globals": {"o": "1", "y": "", "c": "first"}, "written": "", "error": "liquid: Unknown index\n  with:\n    variable=c\n    requested index=é\n    available indexes=\n", "lenient": {"written": "%[[]]"}}
{"template": "{{\nblank}}{{ '%}' }}{{- _u.nilx -}}{% glob \r\n %}{%- set n-1 false %}{%-  brk%}{%endglob %}{%swap \r\n %}{%glob \r\n -%}  \n }{%\tendglob  %}{%endswap\t-%}{{size }}", "globals": {"x": "s", "a": "é", "b": "o"}, "written": "%}", "error": "liquid: Unknown variable\n  with:\n    requested variable=_u\n", "lenient": {"written": "%}"}}
{"template": "{%raw \r\n %}{{\na\t|append  : nilx}}{%- \r\n set\nb\n\"\"-%}é{%brk %}{% endraw \r\n -%}", "written": "{{\na\t|append  : nilx}}{%- \r\n set\nb\n\"\"-%}é{%brk %}"}
{"template": "{% sbox%}x y{{-0-}}}}{% brk \r\n %}{% \r\n endsbox-%}", "globals": {"b": "-1"}, "written": "x y0}}"}
{"template": "{%swap  -%} {{y\n}} {%brk  %}{% \r\n endswap-%}{{\t'%}'\n-}}x y{{-o }}", "globals": {"y": ""}, "written": "  "}
{"template": "{{o[o[  null\n]] }}{{\"size\" }}{{ \r\n 1}}", "written": "", "error": "liquid: Expected scalar\n  with:\n    found=nil\n"}
{"template": "{{\tnil\n}} {%box \r\n %}{%-\tbox%}{%\tendbox -%}%}{{% endbox%}", "written": "", "error": "liquid: Invalid liquid (line 3, column 28)\n"}
{"template": "{{b \r\n |  append\t:nilx,nilx \r\n -}}{% brk\n%}{{ empty -}}{%set size null  %}{{42}}}}", "globals": {"x": "first", "l": "o"}, "written": "", "error": "liquid: Unexpected arguments\nfrom: Filter parsing error\n  with:\n    filter=append\t:nilx,nilx\n"}
{"template": "ab x y{{x.first[\" \"\t]}}%{% brk%}", "globals": {"b": "", "x": "-1"}, "written": "ab x y", "error": "liquid: Unknown index\n  with:\n    variable=x\n    requested index=first\n    available indexes=\n", "lenient": {"written": "ab x y%"}}
{"template": "{%\tset  b nilx%}{% brk\n%}{%-\nsbox\t%}{{\ty }}{%-endsbox\t-%}{{ \r\n null}}{%-\tbrk%}a", "globals": {"o": "1"}, "written": "", "error": "liquid: Unknown variable\n  with:\n    requested variable=nilx\n", "lenient": {"written": ""}}
{"template": "{%with  g \"s\"%} %{%brk%}{% endwith  %}{{-1\t}}-", "globals": {"b": "é"}, "written": " %"}
{"template": "{%with l '%}'\n%}{%  brk\t%}}}{{42-}}{%endwith \r\n %}", "globals": {"b": "+1", "e": "-1"}, "written": ""}
{"template": "{%brk\t%}{% set c nilx %}", "globals": {"c": "é"}, "written": ""}
{"template": "{{\"s\"|append: a[nil]\t}}{{  c}}{%-\nwith  nil-x \"\"\t-%}   \n {%- box%}{{-\nnull\t-}}{%\tendbox\n%}{%\nendwith  %}", "globals": {"e": "é"}, "written": "", "error": "liquid: Expected scalar\n  with:\n    found=nil\nfrom: Filter error\n  with:\n    filter=append\n    input=\"s\"\n"}
{"template": "é{% sbox\t%}{{%endsbox %}{%- box\n-%}  {%-endbox\n%}{{  true|  append: o[ x  ]  |append  : o |append  :1 \r\n }}", "written": "", "error": "liquid: Invalid liquid (line 1, column 12)\n"}
{"template": "{{  e  |append: \r\n 0|append: first\n|append:\tb, +2| append: _u  , \r\n size -}}%}{{  0  }}{% brk%}", "globals": {"e": "size"}, "written": "", "error": "liquid: Unexpected arguments\nfrom: Filter parsing error\n  with:\n    filter=append:\tb, +2\n"}"#;
