"""The page of HTML that steps through a script: what it tells, how that is drawn, and how both become markup.

`steps` has the lines, each with its entries in words, `ruled` their rules with links into the docs, `waits` who waits
behind each, `lanes` the picture as SVG, and `writing` puts them into page.html, with page.css and page.js. All of this
comes from a script and its transcript.

What the program tells of the machine's rows becomes tables: `kinds` has their columns, `cells` how values are told in
them, `history` what each step changes, and `tables` the markup and the data for tables.js, with tables.css.
"""
