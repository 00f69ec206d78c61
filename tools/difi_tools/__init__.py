"""What the scripts beside this folder share. It stands outside of what is proved of `difi`."""
