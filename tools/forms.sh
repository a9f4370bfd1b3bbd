# What the words of each command stand for, as the manual page has them; for the tools beside it, in the folder $here.

# The manual page, in the repository or the archive, or where `make install` or a package put it.
page=$here/../docs/modem.1
[ -r "$page" ] || page=$here/../../man/man1/modem.1
[ -r "$page" ] || page=$page.gz

# The words that this command takes, as the manual page's synopsis has them: outputs, which are bold there, with a > in front.
form_of() {
    asked=$1 awk 'BEGIN { opening = "\\fBmodem " ENVIRON["asked"] "\\fR " }
        index($0, opening) == 1 {
            parts = split(substr($0, length(opening) + 1), fonts, /\\f/)
            for (part = 1; part <= parts; part++) {
                mark = fonts[part] ~ /^\(BI/ ? ">" : ""
                words = split(substr(fonts[part], mark ? 4 : 2), names, " ")
                for (word = 1; word <= words; word++) printf "%s%s ", mark, names[word]
            }
        }' <(zcat -f "$page")
}
