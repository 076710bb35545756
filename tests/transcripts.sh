# Transcripts of whole commands on the fleets of tests/worked.txt: tests/transcripts/ has a page for each subject, whose
# fences are run as those of the documents.

# The worked fleets, a file for each part of tests/worked.txt.
mkdir "$work/worked" "$work/hex"
awk -v worked="$work/worked/" -v hex="$work/hex/" '
    /^[#:%] / { if (to != "") close(to); to = $1 == ":" ? worked $2 : hex $2; next }
    { print > to }' "$root/tests/worked.txt"
for program in "$work"/hex/*; do
    bytes $(cat "$program") > "$work/worked/$(basename "$program")"
done

for page in "$root"/tests/transcripts/*.md; do
    name=$(basename "$page" .md)
    document "transcripts-$name" "tests/transcripts/$name.md" "$work/worked"
done
