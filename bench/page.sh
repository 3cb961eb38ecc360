#!/bin/sh
# The page of a good core and of a broken one, as a browser shows them, and what a page of stock
# labels costs. Usage: page.sh RVSUITE STOCK FOLDER: STOCK has isa.yaml, dataset.cgf and rv32im.cgf.
set -eu
rvsuite=$1; stock=$2; out=$3; here=$(cd "$(dirname "$0")" && pwd)
mkdir -p "$out/good" "$out/bad"
cat > "$out/good.yaml" <<END
name: 'good core'
command: ['{self}', reference, --isa, '$stock/isa.yaml', --test, '{test}', --signature, '{signature}']
END
cat > "$out/bad.sh" <<END
#!/bin/sh
"$rvsuite" reference --isa "$stock/isa.yaml" --test "\$1" --signature "\$2.whole" > "\$2.said"
case \$1 in
    */mul*.S|*/xor*.S) sed '7s/./f/;40s/......../deadbeef/' "\$2.whole" > "\$2" ;;
    */lui.S) head -n 3 "\$2.whole" > "\$2" ;;
    */auipc.S) echo nothing > "\$2" ;;
    *) cp "\$2.whole" "\$2" ;;
esac
END
chmod +x "$out/bad.sh"
cat > "$out/bad.yaml" <<END
name: 'broken <core> & "friends"'
command: ['$out/bad.sh', '{test}', '{signature}']
END
for core in good bad; do
    set -- --isa "$stock/isa.yaml" --cgf "$stock/dataset.cgf" --cgf "$stock/rv32im.cgf" \
        --device "$out/$core.yaml" --work "$out/$core"
    "$rvsuite" run "$@" > "$out/$core.run" || true
    begin=$(date +%s.%N)
    "$rvsuite" report "$@" > "$out/$core.html" && status=0 || status=$?
    end=$(date +%s.%N)
    echo "$core: status $status, $(wc -c < "$out/$core.html") bytes," \
        "$(echo "$end - $begin" | bc) seconds"
    python3 "$here/page.py" "$rvsuite" "$stock/isa.yaml" "$out/$core.yaml" "$out/$core" \
        -- "$stock/dataset.cgf" "$stock/rv32im.cgf" | cmp - "$out/$core.html"
    python3 "$here/page_look.py" "$out/$core.html" "$out/$core.run"
done
