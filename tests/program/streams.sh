# shellcheck shell=sh disable=SC2154
# Standard input and output in the place of files, sources in the place of images, and one file by two paths.

cp source ../source_was

# says TEXT: standard error of the last run has this text.
says() {
    holds "standard error shows $1" grep -qF -e "$1" ../err
}

# ---- A source, or names, wherever an image is taken
gives 0 "$answers" replay source < events
gives 0 "$client_text" print source
gives 0 "$("$program" find two a)" find source a
gives 0 "$("$program" show two)" show source
gives 0 "$("$program" show --svg two)" show --svg source
gives 0 "$answers" replay --names names including map=map < events
gives 0 "$client_text" print --names names including map=map
gives 0 "$("$program" find two a)" find --names names including a map=map
mkdir -p own_folder/symbols
cp map own_folder/symbols/map
gives 0 "$("$program" find two a)" find --names names -I own_folder including a
gives 1 'F9 FileMissing at 0:61-66' print including
says "including:1:62: error: no file 'map' is handed in"
gives 1 'I2 Magic' dump source
says "no image but a keymap's source"

# ---- Standard input
gives 0 "$notes" compile - out < source
holds 'the image of a source on standard input' cmp -s out two
gives 0 "$client_text" print - < source
gives 0 "$text" print - < two
gives 0 "$("$program" show two)" show - < two
gives 0 "$("$program" find two a)" find - a < one
gives 0 "$(echo "$two" | tr -d ' \n' | fold -w 64)" dump - < two
gives 0 '' upgrade - newer < one
holds 'an image on standard input upgraded' cmp -s newer two
gives 1 'F6 Syntax at 0:0-4' compile - out < events
says '<stdin>:1:1: error: '

# ---- Standard output, where nothing but the image stands
for out in - /dev/stdout /dev/fd/1 /proc/self/fd/1; do
    "$program" compile source "$out" > image 2> ../err
    holds "compile to $out" cmp -s image two
    says "$notes"
done
"$program" upgrade one - > image 2> ../err
holds 'upgrade to standard output' cmp -s image two
holds "upgrade to standard output: standard error is empty" [ ! -s ../err ]
gives 1 '' compile events -
says 'F6 Syntax at 0:0-4'
gives 1 '' upgrade source -
says 'I2 Magic'
echo old > ./-
gives 0 "$notes" compile source ./-
holds "a file of the name '-'" cmp -s ./- two
rm ./-

# ---- One file by two paths
# same FILE WORD..: the words are refused, and the file is left alone.
same() {
    file=$1
    shift
    cp "$file" ../was
    gives 2 '' "$@"
    says "is read, and can't be OUT too"
    holds "xkc $*: $file is left alone" cmp -s "$file" ../was
}
ln -s source link
ln -s "$PWD" here
ln source another
same source compile source ./source
same source compile ./source source
same source compile source "$PWD/source"
same source compile source here/source
same source compile source link
same source compile link source
same map compile --names names including ./map map=map
same names compile --names names including ./names map=map
same own_folder/symbols/map compile --names names -I own_folder including own_folder/symbols/map
same one upgrade one ./one
gives 0 "$notes" compile another here/out
holds 'an image by a path through a link' cmp -s out two
same source compile source another
holds 'the source itself is left' cmp -s source ../source_was
rm link here another
