setlocal commentstring=#\ %s comments=b:#,b:>
