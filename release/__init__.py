"""How the programs are built, installed and packed: what `./build`, `./install` and `./package` run."""
