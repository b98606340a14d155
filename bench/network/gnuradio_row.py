"""Runs a row of blocks that add one in GNU Radio: gnuradio_row.py COUNT TOKENS. Prints the seconds of the run, or nothing where
GNU Radio isn't installed."""
import sys
import time

try:
    from gnuradio import blocks, gr
except ImportError:
    sys.exit(0)


def main():
    count, tokens = int(sys.argv[1]), int(sys.argv[2])
    graph = gr.top_block()
    last = blocks.head(gr.sizeof_char, tokens)
    graph.connect(blocks.null_source(gr.sizeof_char), last)
    for _ in range(count):
        block = blocks.add_const_bb(1)
        graph.connect(last, block)
        last = block
    graph.connect(last, blocks.null_sink(gr.sizeof_char))
    start = time.perf_counter()
    graph.run()
    print(time.perf_counter() - start)


main()
