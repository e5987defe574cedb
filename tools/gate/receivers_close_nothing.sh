#!/bin/sh
# receivers_close_nothing.sh: a close by an end that receives is no program: its types are refused, before any proof.
# Tried on a copy of hub_uses whose pool closes the other end. Needs crates that were built.
set -u
root=$(cd "$(dirname "$0")/../.." && pwd)
work=$(mktemp -d)
trap 'rm -rf "$work"' EXIT
mkdir "$work/crates"
cp "$root/HANDLES" "$work"
for crate in hub_base hub_text hub_laws hub_parts hub_core hub_live hub_crew hub_uses; do
    cp -a "$root/crates/$crate" "$work/crates"
    grep "^$crate:" "$root/crates.txt" >> "$work/crates.txt"
done

pool=src/pool.rt
sed -i 's/seat\.close_port(rt, hub, &sender)/seat.close_port(rt, hub, \&self.chan.receiver())/' \
    "$work/crates/hub_uses/$pool"
if cmp -s "$work/crates/hub_uses/$pool" "$root/crates/hub_uses/$pool"; then
    echo "receivers_close_nothing: no close to change"
    exit 1
fi
cd "$work/crates/hub_uses" && rt check > "$work/told" 2>&1
if grep -q 'error\[mismatched-types\]: expected `&End<Sends>`, found `&End<Receives>`' "$work/told"; then
    exit 0
fi
echo "receivers_close_nothing: not refused"
tail -n 5 "$work/told"
exit 1
