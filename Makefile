# make run    the main job: the bench set K1 to K14 through the library's entries, a line each
# make test   everything that the gate checks, which is .ci/run; the last line is rt's 'N passed, 0 failed'
#
# make lib, examples, outside, soak, faults, bench: the C library, in mk/door.mk
.PHONY: run test toolchain choices

run: toolchain
	@sh mk/prove.sh run cases

test:
	@.ci/run

# The program that tries every choice, against the bench set and the samples; the one that reads texts, against those worked out by hand; and
# the faults that they must notice.
choices:
	@outside/choices/check.sh
	@outside/choices/check.sh --self-test
	@outside/texts/check.sh
	@outside/texts/check.sh --self-test

toolchain:
	@command -v rt >/dev/null || { echo "Rattle's command rt is missing: put its kit's bin/ on the PATH"; exit 1; }

include mk/door.mk
