"""From AltaRica 3.0 as it is written to the static fragment of the profile, and back. Not proved.

`source` reads a text, `elaborate` says what its units, variables, ways and flows are, `live`, `groups`, `shocks` and
`unfold` find the trees of the new model, `plan` gives its members their names, `rewrite` and `edits` write it into the
text; `wide` and the modules named `forms_..` turn other forms of AltaRica 3.0 into those of the profile before that.
"""
