# run.sh COMPILER FLAGS: compiles each bundle, runs it in a new folder, and prints how its trace differs from the expected one.
# A bundle that runs for more than a minute is stopped.  The last line has the counts.
if [ "$(id -u)" != 0 ]; then
	echo 'run.sh: run it as root: chroot(2) needs it' >&2
	exit 1
fi
uname -srm
mkdir -p made
same=0 differing=0 failed=0 known=0
for source in bundles/*.c; do
	name=$(basename "$source" .c)
	if ! $1 $2 -I. -o "made/$name" "$source" machine.o 2> made/log; then
		echo "== $name: not compiled"
		cat made/log
		failed=$((failed + 1))
		continue
	fi
	folder=$(mktemp -d)
	"made/$name" "$folder" > "made/$name.trace" 2> made/log &
	run=$!
	(sleep 60; kill $run 2> made/kill) &
	watch=$!
	wait $run
	status=$?
	kill $watch 2> made/kill
	rm -rf "$folder"
	if [ $status != 0 ]; then
		echo "== $name: status $status"
		cat made/log
		failed=$((failed + 1))
	elif cmp -s "bundles/$name.expected" "made/$name.trace"; then
		same=$((same + 1))
	else
		echo "== $name: - as pvsim, + as this kernel"
		diff -u "bundles/$name.expected" "made/$name.trace" | sed 1,2d
		differing=$((differing + 1))
		case $name in
		cases_openbsd_* | cases_host_kernel_*) known=$((known + 1)) ;;
		esac
	fi
done
echo "$known of those that differ are made to show a known difference (cases_openbsd_*, cases_host_kernel_*)"
echo "$same the same, $differing differing, $failed failed"
