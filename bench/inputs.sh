# The inputs that several benches measure on, scripts and captures, and how the programs are counted over them. To be sourced behind
# programs.sh.

# A script's lines by what is asked for. The counts of a form's lines lie where the journal's list has room already: it has room for
# 2,048 entries behind the 1,100 fills of the head.
generate() {
    awk -v job="$1" -v count="$2" -v preset="${3:-full}" -v entries="${4:-1100}" -v side="${5:-16}" '
    function color(i) { return sprintf("%06X", (i * 7919) % 16777216) }
    function place(i) { return sprintf("%d %d", (i * 37) % 1000, (i * 53) % 700) }
    # one that is larger than 16 by 16 stands in the corner, so that all of it is on the picture
    function box(i) { return side == 16 ? place(i) " 16 16" : "0 0 " side " " side }
    function source(i) { return side == 16 ? (i * 29) % 900 " " (i * 31) % 700 : "256 128" }
    function fill(i) { return sprintf("fill %s %d %d %s", place(i), 1 + i % 60, 1 + i % 50, color(i)) }
    function brush(i, pixel, text) {
        for (pixel = 0; pixel < 64; pixel++) text = text color((i + pixel) % 5)
        return "brush 0 " text
    }
    function image(i) { return "image 0 16 16 " color(i) }
    function glyph(i) { return sprintf("glyph 0 %d 0 0 8 8 %s%s%04X", i % 8, color(i), color(i + 1), i % 65536) }
    function text(i) { return "text " place(i) " " color(i) " 0 " i % 8 ":0 " (i + 1) % 8 ":8 " (i + 2) % 8 ":8" }
    # 17 signs more
    function signs(i, k, more) {
        for (k = 0; k < 17; k++) more = more " " (i + k) % 8 ":8"
        return more
    }
    function line(i) { return sprintf("line %s %d %d %s", place(i), (i * 37) % 1000 + 15, (i * 53) % 700 + 11, color(i)) }
    function of_form(form, i) {
        if (form == "fill") return "fill " box(i) " " color(i)
        if (form == "dst") return "dst " box(i) " 55"
        if (form == "pat") return "pat " box(i) " 5A 0"
        if (form == "copy") return "copy " box(i) " CC " source(i)
        if (form == "blit") return "blit " box(i) " CC 0 0 0"
        if (form == "blit3") return "blit3 " box(i) " CA 0 0 0 0"
        if (form == "text") return text(i)
        if (form == "text of 20 signs") return text(i) signs(i)
        if (form == "line") return line(i)
        if (form == "save") return "save 0 " box(i)
        if (form == "restore") return "restore 0 " place(i)
        if (form == "image") return image(i)
        if (form == "brush") return brush(i)
        if (form == "glyph") return glyph(i)
        if (form == "key") return "key 58 up"
        if (form == "a key that draws nothing") return "key 1E down"
        if (form == "char") return "char " 33 + i % 94
        if (form == "mouse") return "mouse 9000 " place(i)
        if (form == "suppress, allow") return i % 2 ? "suppress" : "allow"
        if (form == "refresh") return "refresh " box(i)
        if (form == "take, with nothing due") return "take"
        if (form == "join, leave") return i % 2 ? "join ann full" : "@" 1 + i / 2 " leave"
    }
    # the picture, its owner, what the lines name, so many fills, and a take of it all
    function head(i) {
        print "size 1024 768\ninvite ann owner\njoin ann " preset
        print image(1) "\n" brush(1)
        for (i = 0; i < 8; i++) print glyph(i)
        print "save 0 0 0 16 16"
        for (i = 0; i < entries; i++) print "fill " place(i) " 1 1 " color(i)
        print "take"
    }
    # so many takes, each behind so many drawings of a form; or the drawings alone
    function rounds(form, drawings, takes, i, j) {
        head()
        for (i = 0; i < count; i++) {
            for (j = 0; j < drawings; j++) print of_form(form, i * drawings + j)
            if (takes) print "take"
        }
    }
    # fills that so many viewers see: one of them takes every ten lines, each in its turn; a single one every 200 lines
    function seen_by(viewers, v, i) {
        split("full marked plain bare", presets, " ")
        print "size 1024 768\ninvite ann owner"
        for (v = 1; v <= viewers; v++) print "join ann " presets[v % 4 + 1]
        for (i = viewers + 3; i <= count; i++) {
            if (viewers > 1 && i % 10 == 0) print "@" i / 10 % viewers + 1 " take"
            else if (i % 200 == 0) print "take"
            else print fill(i)
        }
    }
    BEGIN {
        split(job, asked, ":")
        if (asked[1] == "form") {
            head()
            for (i = 1; i <= count; i++) print of_form(asked[2], i)
        } else if (asked[1] == "takes") rounds(asked[2], asked[3], 1)
        else if (asked[1] == "drawings") rounds(asked[2], asked[3], 0)
        else if (asked[1] == "viewers") seen_by(asked[2])
    }'
}

# What tiles of a kind show, in awk.
tile_colors='
    # how much of a pixel the letters of a text cover, from 0 to 255: cells of 8 by 16 with strokes two pixels wide
    function ink(x, y, letter, column, high) {
        letter = (int(x / 8) + int(y / 16)) % 4
        column = x % 8
        high = y % 16
        if (column == 0 || column == 7 || high <= 2 || high >= 13) return 0
        if (column == 1) return 255
        if (column == 2) return 96
        if (high == 3 || high == 12 || high == 8 && letter > 0) return 255
        if (column == 5 && letter > 1) return 160
        if (column == 6 && letter > 1) return 64
        return 0
    }
    # the colour at a column and a row, the bottom row first
    function color(x, y, shade) {
        if (kind == "one colour") return "FF0000"
        if (kind == "a window") return x == 0 || x == 63 || y == 0 || y == 63 ? "808080" : y >= 52 ? "000080" : "FFFFFF"
        if (kind == "grey text") { shade = 255 - ink(x, y); return sprintf("%02X%02X%02X", shade, shade, shade) }
        if (kind == "black text") return ink(x, y) >= 128 ? "000000" : "FFFFFF"
        if (kind == "a photo") return sprintf("%02X%02X%02X", 64 + int((3 * x + y) / 4), 96 + int((x + 2 * y) / 4), 200 - int((x + y) / 4))
        # no pixel like its neighbours, but for a black first row, without which the tile would go unpacked
        return y == 0 ? "000000" : sprintf("%06X", int((64 * y + x) * 2654435761 % 4294967296 / 256))
    }
    # the digits of all of a tile, the top row first
    function tile_digits(x, y, text) {
        for (y = 63; y >= 0; y--) for (x = 0; x < 64; x++) text = text color(x, y)
        return text
    }'

# A script whose picture is one tile: an image of a kind is drawn over it so many times, with a take each time or without one.
tiles() {
    awk -v kind="$1" -v count="$2" -v takes="$3" -v preset="$4" "$tile_colors"'
    BEGIN {
        print "size 64 64\ninvite ann owner\njoin ann " preset
        print "image 0 64 64 " tile_digits()
        print "take"
        for (i = 0; i < count; i++) {
            print "blit 0 0 64 64 CC 0 0 0"
            if (takes) print "take"
        }
    }'
}

# A window of 1,024 by 768 full of text, all of which so many viewers `full` were sent as tiles. Then so many times, as the job says: a viewer
# more joins and takes; all of the window changes, and everybody takes it as tiles, since a line never goes as an order; or ten fills are
# drawn, and everybody takes them as orders.
window() {
    awk -v viewers="$1" -v job="$2" -v count="$3" -v kind='grey text' "$tile_colors"'
    function everybody_takes(v) { for (v = 1; v <= viewers; v++) print "@" v " take" }
    BEGIN {
        print "size 1024 768\ninvite ann owner"
        for (v = 1; v <= viewers; v++) print "join ann full"
        print "image 0 64 64 " tile_digits()
        for (i = 0; i < 192; i++) print "blit " i % 16 * 64 " " int(i / 16) * 64 " 64 64 CC 0 0 0"
        # with these more drawings are pending than go as orders
        for (i = 0; i < 100; i++) printf "fill %d %d 1 1 %06X\n", i * 10, i * 7, i * 7919
        everybody_takes()
        for (i = 1; i <= count; i++) {
            if (job == "joiner") print "join ann full\n@" viewers + i " take"
            if (job == "change") {
                printf "dst 0 0 1024 768 55\nline 0 0 1023 767 %06X\n", i * 7919
                everybody_takes()
            }
            if (job == "ten fills") {
                for (k = 0; k < 10; k++) printf "fill %d %d 16 16 %06X\n", (i * 370 + k * 37) % 1000, (i * 530 + k * 53) % 700, (10 * i + k) * 7919
                everybody_takes()
            }
        }
    }'
}

# The instructions of rdp_host over a generated script.
script_instructions() {
    "$@" >"$work/script"
    instructions "$work/script" "$rdp_host" script
}

# The instructions of one more line of a form.
line_of() {
    a=$(script_instructions generate "form:$1" 400)
    b=$(script_instructions generate "form:$1" 800)
    echo $(((b - a) / 400))
}

# The instructions of one more pixel of a form, by lines of 16 by 16 and of 512 by 512 pixels.
pixel_of() {
    a=$(script_instructions generate "form:$1" 10 full 1100 16)
    b=$(script_instructions generate "form:$1" 20 full 1100 16)
    c=$(script_instructions generate "form:$1" 10 full 1100 512)
    d=$(script_instructions generate "form:$1" 20 full 1100 512)
    awk -v small=$((b - a)) -v large=$((d - c)) 'BEGIN { printf "%.2f", (large - small) / 10 / (512 * 512 - 16 * 16) }'
}

# The instructions of a take behind so many drawings of a form: of more takes with their drawings, without the drawings.
take_of() {
    a=$(script_instructions generate "takes:$1:$2" 10 full "$3")
    b=$(script_instructions generate "takes:$1:$2" 20 full "$3")
    c=$(script_instructions generate "drawings:$1:$2" 10 full "$3")
    d=$(script_instructions generate "drawings:$1:$2" 20 full "$3")
    echo $(((b - a - (d - c)) / 10))
}

# The memory of an entry more of a form, in bytes: the journal's list has room for 131,072 entries, and then for twice as many.
entry_of() {
    generate "form:$1" 129900 >"$work/few"
    generate "form:$1" 260900 >"$work/many"
    few=$(memory "$work/few" "$rdp_host" script)
    many=$(memory "$work/many" "$rdp_host" script)
    echo $(((many - few) / 131000))
}

# The digits of a number of two bytes, the lowest first.
little() { printf '%02x%02x' $(($1 % 256)) $(($1 / 256)); }

# The digits of the packet of an update with this body.
packet() {
    total=$((${#1} / 2 + 18))
    printf '0300%04x02f08068000103eb70%04x' $((total + 15)) $((total + 32768))
    little $total
    printf '1700ea03ea0301000001'
    little $((total - 14))
    printf '02000000%s' "$1"
}

# The digits of the packet of so many fills of this side, the first with all its fields; the others differ in place and colour.
fills() {
    orders=$(awk -v count="$1" -v side="$2" 'BEGIN {
        printf "090a7f64006400%02x00%02x00ff8040", side, side
        for (i = 1; i < count; i++) printf "1173%s%02x0203", i % 2 ? "0101" : "ffff", i
    }')
    packet "00000000$(little "$1")0000$orders"
}

# The digits of the packet of a packed tile, and of a mark.
tile() { packet "0100010000000000""3f003f0040004000""18000104$(little $((${#1} / 2)))$1"; }
mark() { packet 03000000; }

# A capture in which these bytes stand so many times, for a viewer.
capture() {
    echo "1 joined 2048 2048 full"
    for i in $(seq "$2"); do echo "1 $1"; done
}

# Counts what a digit takes that is read and not obeyed, since it is another viewer's: the lines of N and of 2N bytes, each ten times.
digits_read() {
    for count in "$1" $((2 * $1)); do
        bytes=$(awk -v count="$count" 'BEGIN { for (i = 0; i < count; i++) printf "%02x", i * 37 % 256 }')
        { printf '1 joined 64 64 full\n2 joined 64 64 full\n'; for i in 1 2 3 4 5 6 7 8 9 10; do echo "2 $bytes"; done; } >"$work/capture"
        instructions "$work/capture" "$rdp_look" 1
    done | awk -v digits=$((20 * $1)) 'NR == 1 { few = $1 } NR == 2 { printf "%.2f", ($1 - few) / digits }'
}

# Counts what these bytes take once more: all instructions, those of the client, and those of a tile's pixels.
fed() {
    capture "$1" 1 >"$work/capture"
    a=$(instructions "$work/capture" "$rdp_look" 1)
    client_a=$(inclusive '::stage::feed_client')
    pixel_work_a=$(inclusive '::upright_pixels')
    capture "$1" 11 >"$work/capture"
    b=$(instructions "$work/capture" "$rdp_look" 1)
    all=$(((b - a) / 10))
    client=$((($(inclusive '::stage::feed_client') - client_a) / 10))
    pixel_work=$((($(inclusive '::upright_pixels') - pixel_work_a) / 10))
}
