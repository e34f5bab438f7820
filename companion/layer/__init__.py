"""What the commands of companion/gatepast are made of. Nothing here is proved, and nothing here judges."""
