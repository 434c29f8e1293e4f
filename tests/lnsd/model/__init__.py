"""Random loads beside a plain model."""
