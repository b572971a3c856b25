# What the host is built from, as names in the repository and, behind them, what find leaves out.
# shellcheck shell=sh disable=SC2034
host_files='keeper.c append.c root.c ask.c passage.c check.c find.c verify.c repair.c digest.c node.c page.c picture.c view.c letters.c shown.c
gathered.c trusted.c key.c store.c records.c sizes.c tree.c plain.c mapped.c fresh.c handed.c batch.c stream.c input.c blocks.c sums.c options.c
answer.c say.c numbers.c progress.c start.c'
host_sources='hosts include crates crates.txt outside/bridge.c VERSION -path hosts/tests -prune -o -name must-fail -prune -o -name out -prune -o'
test_sources='hosts include crates crates.txt VERSION -name __pycache__ -prune -o -name must-fail -prune -o -name out -prune -o -name *.py -prune -o'
