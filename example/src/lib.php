<?php

function say() {
}

function LOG_LINE() {
}
