"""The rows of the test programs: what each is expected to print, made of its inputs."""
