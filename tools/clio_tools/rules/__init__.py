"""What a drawing means: rules, each with the words that say why it is there; clio-rules uses these modules."""
