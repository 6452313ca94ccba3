"""Part 1: the example of paper 01, byte for byte."""
import os

from board_run import (ABSENT, BOARD, Bench, REFERENCE, TOP, demand, demand_calm, demand_nothing_beside, read_file, run_part,
                       short)


def paper(name):
    return read_file(os.path.join(TOP, 'tests/paper', name))


def demand_paper(outcome, case, replies, table):
    demand_calm(outcome, case)
    demand(outcome.out == replies, case, f'replies {short(outcome.out)}, the paper has {short(replies)}')
    demand(outcome.table == table, case, f'TABLE {short(outcome.table)}, the paper has {short(table)}')
    demand_nothing_beside(outcome, case)


def part():
    requests, replies, table = paper('example.requests'), paper('example.replies'), paper('example.table')
    lines, answers = requests.splitlines(True), replies.splitlines(True)
    count = 0
    with Bench() as bench:
        for program in (REFERENCE, BOARD):
            case = f'paper 01\'s example with {program}'
            demand_paper(bench.serve(program, requests), case, replies, None)
            demand_paper(bench.serve(program, requests, ABSENT), case, replies, table)
            demand_paper(bench.serve(program, requests[:-1], ABSENT), f'{case}, last line without its end', replies, table)
            count += 3
            for cut in range(len(lines) + 1):
                name = f'{case}, {cut} lines and then the rest over the stored TABLE'
                first = bench.serve(program, b''.join(lines[:cut]), ABSENT)
                demand_calm(first, name)
                demand(first.out == b''.join(answers[:cut]), name, f'first half {short(first.out)}')
                second = bench.serve(program, b''.join(lines[cut:]), first.table)
                demand_paper(second, name, b''.join(answers[cut:]), table)
                count += 1
    return f'the paper\'s lines, replies and table from both programs, whole and in two parts, {count} checks'


if __name__ == '__main__':
    run_part('1 example', part)
