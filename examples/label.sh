#!/bin/sh
# label.sh BITS [FOLDER]: prints a label for a tag and reads it back. The label text of the tag's bits becomes a GS1 DataMatrix, a GS1-128
# and a GS1 QR Code symbol by zint, in FOLDER; ZXing and zbar read them, and each reading has to name what the tag names.
# Prints a line for each reading. The status is 1 if one differs. $TDL is the program, else `tdl` on the PATH.
set -eu
tdl=${TDL:-tdl}
folder=${2:-$(mktemp -d)}

answer() { sed -n 's/^ok //p'; }
link=$(printf '%s\n' "$1" | "$tdl" canon hex | answer)
label=$(printf '%s\n' "$1" | "$tdl" translate hex bracketed | answer)
[ -n "$label" ] || { echo "label.sh: these bits are not those of a tag: $1" >&2; exit 1; }
echo "label $label"
# (zint has the codes in square brackets, which no value has, and the bracket of a value as it is)
data=$(printf '%s' "$label" | sed 's/\\(/\n/g' | sed 's/(\([0-9]*\))/[\1]/g' | paste -s -d '(' -)

status=0
compare() {
    read=$("$tdl" canon raw | answer)
    if [ "$read" = "$link" ]; then echo "ok $1 $read"; else echo "no $1 $read"; status=1; fi
}
for symbol in DATAMATRIX:DataMatrix GS1_128:Code128 QRCODE:QRCode; do
    file=$folder/${symbol%:*}.png
    zint --gs1 -b "${symbol%:*}" --scale=3 --quietzones -d "$data" -o "$file"
    ZXingReader -bytes -format "${symbol#*:}" "$file" > "$file.read"
    compare "${symbol%:*} ZXing" < "$file.read"
    # (zbar reads no DataMatrix)
    if [ "${symbol%:*}" != DATAMATRIX ]; then
        zbarimg -q --nodbus --raw -1 -Sbinary "$file" > "$file.read"
        compare "${symbol%:*} zbar" < "$file.read"
    fi
done
exit $status
