"""What the programs share that have a user choose changes: git-select and gabrosty-diff-editor."""
