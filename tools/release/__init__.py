"""What a release needs: the stamps of proved libraries, one version, and what dist/ ships."""
