#!/usr/bin/env bash
# Runs the tests of Dask, bindings/python/tests/test_dask.py, on three hosts: network namespaces of this machine on a bridge, two with a worker, and one with
# the scheduler and what divides and joins the rings. It takes root, iproute2, python3-distributed and the C library of `make c`.
set -eu
cd "$(dirname "$0")/.."
export PYTHONPATH=$PWD/bindings/python/src I_SHAPE_C_DIR=${I_SHAPE_C_DIR:-$PWD/bindings/c/out} PYTHONDONTWRITEBYTECODE=1
export DASK_SCHEDULER=tcp://10.71.0.1:8786
work=$(mktemp -d) net=h$$ pids=()

end() {
    set +e
    kill "${pids[@]}" 2> /dev/null
    wait
    for k in 1 2 3; do ip netns delete "$net-$k"; done
    ip link delete "$net"
    rm -rf "$work"
}

# The words from $2 on, on the host $1.
on() { exec ip netns exec "$net-$1" "${PYTHON:-/usr/bin/python3}" "${@:2}"; }

"${PYTHON:-/usr/bin/python3}" -c 'import distributed' # without it the tests are skipped
ip link add "$net" type bridge && trap end EXIT && ip link set "$net" up
for k in 1 2 3; do
    ip netns add "$net-$k"
    ip link add "$net-$k" type veth peer name eth0 netns "$net-$k"
    ip link set "$net-$k" master "$net" up
    ip -n "$net-$k" address add "10.71.0.$k/24" dev eth0
    ip -n "$net-$k" link set eth0 up
    ip -n "$net-$k" link set lo up
done
(on 1 -m distributed.cli.dask_scheduler --host 10.71.0.1 --no-dashboard) > "$work/scheduler" 2>&1 & pids+=($!)
for k in 2 3; do
    (on $k -m distributed.cli.dask_worker $DASK_SCHEDULER --nthreads 1 --no-nanny --no-dashboard --local-directory "$work") > "$work/worker$k" 2>&1 & pids+=($!)
done
(on 1 bindings/python/tests/test_dask.py) || { cat "$work"/{scheduler,worker2,worker3} && exit 1; }
for k in 2 3; do echo "host $k received $(ip netns exec "$net-$k" cat /sys/class/net/eth0/statistics/rx_bytes) bytes"; done
