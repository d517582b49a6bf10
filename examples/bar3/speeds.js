module.exports = { slow: 0.1, show: 0.4 };
