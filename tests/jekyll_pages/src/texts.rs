//! Rows of texts as Jekyll's authors write them.
use jekyll_source::jekyll_text;
use rows::{Line, is_text, rows_hold};
use std::alloc::Global;
use std::test::Fail;

/// A text, and the text in this engine's grammar.
const ROWS: &str = r#"["{% include nav/item.html %}", "{%include \"nav/item.html\"%}"]
["{% include a.html x=1 %}", "{%include \"a.html\" x=1%}"]
["{%include head%}", "{%include \"head\"%}"]
["{%include a.html %}", "{%include \"a.html\"%}"]
["{%- include p(1).html -%}", "{%-include \"p(1).html\"-%}"]
["{%  include   a.html  %}", "{%  include   \"a.html\"%}"]
["{% include_relative b.md %}", "{%include_relative \"b.md\"%}"]
["{% include_cached b.html x=1 %}", "{%include_cached \"b.html\" x=1%}"]
["{% link _posts/2020-01-02-a.md %}", "{%link \"_posts/2020-01-02-a.md\"%}"]
["{% link assets/x y.png %}", "{%link \"assets/x y.png\"%}"]
["{% link d/{{ \"x\" }}.html %}", "{%link < \"d/\" \"x\" \".html\" >%}"]
["{% link _birds/{{ \"OWL\" | downcase }}.md %}", "{%link < \"_birds/\" \"OWL\" | downcase \".md\" >%}"]
["{% post_url 2020-01-02-a %}", "{%post_url \"2020-01-02-a\"%}"]
["{% post_url /cat/2020-05-06-b %}", "{%post_url \"/cat/2020-05-06-b\"%}"]
["{% highlight c++ linenos %}a{% endhighlight %}", "{%highlight \"c++\" linenos%}a{% endhighlight %}"]
["{% include a/{{ x }}.html %}", "{%include < \"a/\" x \".html\" >%}"]
["{% include {{ page.x }} %}", "{% include < page.x >   %}"]
["{% include {{f}}.html %}", "{%include < f \".html\" >%}"]
["{% include d/{{ f | downcase }}.html k=1 %}", "{%include < \"d/\" f | downcase \".html\" > k=1%}"]
["{% include a{{ b }}{{ c }} %}", "{% include < \"a\" b c >     %}"]
["{% include a{{- b -}}.html %}", "{%include < \"a\" b \".html\" >%}"]
["{% include \"a.html\" %}", "{% include \"a.html\" %}"]
["{% include 'a b' x=1 %}", "{% include 'a b' x=1 %}"]
["{% include < \"a\" x > y=1 %}", "{% include < \"a\" x > y=1 %}"]
["{% include a\"b.html %}", "{%include 'a\"b.html'%}"]
["{% include a\"b'c %}", "{% include a\"b'c %}"]
["{% include a.html x=\"a \\\"b\\\"\" %}", "{% include \"a.html\" x='a \"b\"' %}"]
["{% include a.html x='it\\'s' %}", "{% include \"a.html\" x=\"it's\"%}"]
["{% include a.html x=\"a=b\" y = 1 %}", "{%include \"a.html\" x=\"a=b\" y = 1%}"]
["{% include a.html x=\"{{ y }}\" %}", "{%include \"a.html\" x=\"{{ y }}\"%}"]
["{% include a.html x=\"both \\\" and '\" %}", "{%include \"a.html\" x=\"both \\\" and '\"%}"]
["{% include a.html x=\"open %}", "{%include \"a.html\" x=\"open%}"]
["{% highlight a x=\"b\\\"\" %}", "{%highlight \"a\" x=\"b\\\"\"%}"]
["{% raw %}{% include a.html %}{% endraw %}{% include b.html %}", "{% raw %}{% include a.html %}{% endraw %}{%include \"b.html\"%}"]
["{% raw %}{{{% endraw %}{% include b.html %}", "{% raw %}{{{% endraw %}{%include \"b.html\"%}"]
["{%- raw -%}{% endraw x %}{% include a %}{%-endraw-%}{% link b %}", "{%- raw -%}{% endraw x %}{% include a %}{%-endraw-%}{%link \"b\"%}"]
["{% raw %}{% include a.html %}", "{% raw %}{% include a.html %}"]
["{% comment %}{% comment %}{% link a %}{% endcomment %}{% link c %}{% endcomment %}{% link b %}", "{% comment %}{% comment %}{% link a %}{% endcomment %}{% link c %}{% endcomment %}{%link \"b\"%}"]
["{{ \"{% include a.html %}\" }}", "{{ \"{% include a.html %}\" }}"]
["{% assign x = 1 %}{{ x }} text { {% if x %}y{% endif %}", "{% assign x = 1 %}{{ x }} text { {% if x %}y{% endif %}"]
["{% include a.html", "{% include a.html"]
["{{ x {% include a.html %}", "{{ x {% include a.html %}"]
["{% include %}", "{% include %}"]
["{% link %}", "{% link %}"]
["{% include {{ %}", "{% include {{ %}"]
["{% include a.html\n  x=1\n%}", "{%include \"a.html\"\n  x=1\n%}"]
["{% include\na.html %}", "{%include\n\"a.html\"%}"]
["é{% include ü/é.html %}日", "é{%include \"ü/é.html\"%}日"]
["{% seo title=false %}{% feed_meta %}", "{% seo title=false %}{% feed_meta %}"]
["{% includes a %}{% linked b %}", "{% includes a %}{% linked b %}"]
["{% include c:\\d\\x.html %}", "{%include \"c:\\d\\x.html\"%}"]
["{{- x -}}{% include x_1.svg -%}", "{{- x -}}{%include \"x_1.svg\"-%}"]
["{% if a %} {% assign x = 1 %}\n{% endif %}b", "{% if a  %}{% assign x = 1 \n%}{% endif %}b"]
["{% if a -%} {% endif %}", "{% if a  -%}{% endif %}"]
["{% if a %} x {% endif %}", "{% if a %} x {% endif %}"]
["{% if a %} {{ x }} {% endif %}", "{% if a %} {{ x }} {% endif %}"]
["{% unless a %} {% else %} {% endunless %}", "{% unless a  %}{% else  %}{% endunless %}"]
["{% for x in y %} {% if x %} {% assign z = x %} {% endif %} {% endfor %} ", "{% for x in y  %}{% if x  %}{% assign z = x  %}{% endif  %}{% endfor %} "]
["{% for x in y %} {% if x %} {% assign z = x %} {% endif %} - {% endfor %}", "{% for x in y %} {% if x  %}{% assign z = x  %}{% endif %} - {% endfor %}"]
["{% case a %} {% when 1 %} {% comment %} c {% endcomment %} {% endcase %}", "{% case a  %}{% when 1  %}{% comment %} c {% endcomment  %}{% endcase %}"]
["{% if a %} {% capture b %} c {% endcapture %} {% endif %}", "{% if a  %}{% capture b %} c {% endcapture  %}{% endif %}"]
["{% if a %} {% raw %}{% endraw %} {% endif %}", "{% if a  %}{% raw %}{% endraw  %}{% endif %}"]
["{% if a %} {% raw %} {% endraw %} {% endif %}", "{% if a %} {% raw %} {% endraw %} {% endif %}"]
["{% if a %} {% tablerow x in y %} {% endtablerow %} {% endif %}", "{% if a  %}{% tablerow x in y %} {% endtablerow  %}{% endif %}"]
["{% ifchanged %} {% endifchanged %}", "{% ifchanged %} {% endifchanged %}"]
["{% if a %} {% include b.html %} {% endif %}", "{% if a %} {%include \"b.html\"%} {% endif %}"]
["{% if a %} {% break %} {% endif %}", "{% if a %} {% break %} {% endif %}"]
["{% if a %} {% assign b = 1 %}", "{% if a %} {% assign b = 1 %}"]
["", ""]
["no tags", "no tags"]"#;

/// Returns `true` if the text of a row becomes what the row says.
fn is_rewritten(alloc: Global, row: &Line) -> bool {
    match (row.text(0), row.text(1)) {
        (Some(text), Some(wanted)) => is_text(jekyll_text(alloc, text), wanted),
        _ => false,
    }
}

#[test]
fn texts_are_rewritten(rt: HostRuntime) -> Result<(), Fail> {
    rows_hold(rt.alloc(), ROWS, is_rewritten)
}
